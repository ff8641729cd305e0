values=$(printf '%s, ' $(seq 16))
echo "task t { nil(${values}nil); }"
