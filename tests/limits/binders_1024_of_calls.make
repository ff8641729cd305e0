# 1,023 reads of a member for a call, which all call with one argument
echo "fn f(o) {"
for i in $(seq 1023); do echo "o.m$i(1);"; done
echo "o(2); o.m1(3); }"
