for i in $(seq 257); do echo "fn f$i() { }"; done
for i in $(seq 65); do echo "shared s$i;"; done
