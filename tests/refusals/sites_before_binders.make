echo 'fn f(o) {'
for i in $(seq 4097); do echo "o.m$i;"; done
echo '}'
