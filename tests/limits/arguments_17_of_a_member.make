values=$(printf '%s, ' $(seq 16))
echo "shared s; task t { s.m(${values}nil); }"
