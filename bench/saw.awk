# Writes a column `v` of n readings: a saw with noise.
BEGIN {
    print "v"
    s = 1
    for (i = 0; i < n; i++) {
        s = (s * 16807) % 2147483647
        j = i % 1024
        print 10 * (j < 512 ? j : 1024 - j) + s % 256 - 128
    }
}
