cat "$(dirname "$0")/../../examples/two_tasks.dlr"
