# two parameters, 253 names of let and one of catch, half of them in blocks that are left
echo "fn f(a, b) {"
for i in $(seq 103); do echo "let x$i = $i;"; done
for i in $(seq 150); do echo "if true { let y = $i; }"; done
echo "try { } catch e { } }"
echo "fn g(a, b) { let x1 = 1; }"
