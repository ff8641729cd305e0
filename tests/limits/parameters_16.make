names=$(printf 'p%s, ' $(seq 15))
echo "fn f(${names}last) { }"
