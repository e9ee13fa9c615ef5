# Writes the script that a soak carries out, for rio replay: to see its trace, or to cut it down.
#
# usage: awk -v number=N -f soak_script.awk </dev/null

# The product of two numbers below 2^31, modulo 2^31: awk's numbers are exact up to 2^53.
function times(a, b) {
    return ((a * int(b / 65536)) % 2147483648 * 65536 + a * (b % 65536)) % 2147483648
}

function collects(count, node, again) {
    print "run 1"
    for (node = 0; node < 4; node++)
        for (again = 0; again < count; again++)
            print "collect E" node
}

BEGIN {
    for (node = 0; node < 4; node++)
        print "endpoint E" node " " node
    print "switch S 4\nswitch T 4"
    print "link E0.0 S.0\nlink E1.0 S.1\nlink S.2 T.2\nlink E2.0 T.0\nlink E3.0 T.1"
    print "route S 0 0\nroute S 1 1\nroute S 2 2\nroute S 3 2"
    print "route T 2 0\nroute T 3 1\nroute T 0 2\nroute T 1 2"
    x = number % 2147483648
    for (step = 1; step <= 2000; step++) {
        x = (times(1103515245, x) + 12345) % 2147483648
        v = int(x / 65536)
        node = "E" v % 4
        printf "send %s %d 15 %d %04x\npump %s.0 1\n", node, int(v / 16) % 4, int(v / 4) % 4, v, node
        if (int(v / 64) % 3 == 0)
            print "erase " node ".0 0 1"
        if (step % 10 == 0)
            collects(4)
    }
    for (round = 1; round <= 16; round++)
        collects(8)
}
