echo "shared s; task a {"
for i in $(seq 512); do echo "s.m$i = $i; delete s.m$i;"; done
echo "print s.m1; }"
