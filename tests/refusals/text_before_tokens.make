printf 'task 007 { } \377'
