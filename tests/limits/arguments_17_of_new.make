values=$(printf '%s, ' $(seq 16))
echo "task t { new(nil, ${values}nil); }"
