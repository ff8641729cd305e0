echo "task a {"
for i in $(seq 257); do echo "let x$i = $i;"; done
echo "print x256; }"
