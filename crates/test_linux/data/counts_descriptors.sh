# How many descriptors the shell has open. While it starts a program it has a few more, so the least of some counts is it.
for i in 1 2 3 4 5; do
    ls /proc/$PPID/fd | wc -l
    sleep 0.1
done | sort -n | head -1
