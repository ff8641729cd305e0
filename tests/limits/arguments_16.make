# the target of new is no argument
values=$(printf '%s, ' $(seq 15))
echo "shared s; task t { nil(${values}nil); s.m(${values}nil); new(nil, ${values}nil); }"
