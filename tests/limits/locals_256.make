echo "task a {"
for i in $(seq 256); do echo "let x$i = $i;"; done
echo "print x256; }"
