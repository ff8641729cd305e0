for i in $(seq 257); do echo "fn f$i() { }"; done
