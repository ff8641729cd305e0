echo "shared s; task a {"
for i in $(seq 4032); do echo "s.x = new();"; done
echo "print s.x; }"
