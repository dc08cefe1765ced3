test /proc/$$/fd/2 -ef /dev/null && echo descriptor 2 is /dev/null
