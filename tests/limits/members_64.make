echo "shared s; task a {"
for i in $(seq 64); do echo "s.m$i = $i;"; done
echo "s.m1 = 7; print s.m1; print s.m64; }"
