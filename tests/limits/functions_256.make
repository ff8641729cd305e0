for i in $(seq 256); do echo "fn f$i() { }"; done
