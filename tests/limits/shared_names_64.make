for i in $(seq 64); do echo "shared s$i;"; done
echo "task a { print s64; }"
