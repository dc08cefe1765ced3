# Whether a child of the shell has ended and was not waited for.
count=no
for state in /proc/[0-9]*/stat; do
    read -r line <"$state" && set -- ${line##*) } && [ "$1$2" = "Z$PPID" ] && count=a
done 2>/dev/null
echo $count zombie is left
