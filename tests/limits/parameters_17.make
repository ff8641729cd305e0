names=$(printf 'p%s, ' $(seq 16))
echo "fn f(${names}last) { }"
