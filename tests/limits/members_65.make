echo "shared s; task a {"
for i in $(seq 65); do echo "s.m$i = $i;"; done
echo "}"
