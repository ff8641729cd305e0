values=$(printf '%s, ' $(seq 16)); names=$(printf 'p%s, ' $(seq 16))
echo "task t { nil(${values}nil); } fn f(${names}last) { }"
