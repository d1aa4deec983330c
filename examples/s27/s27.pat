# values of G0 G1 G2 G3 and of G5 G6 G7 at step 1, then of G0 G1 G2 G3 at steps 2, 3 and 4
0110 111  0000  1011  0101
0100 XXX  0000  0101  1001  # whatever state it starts from
1010 000  0101  1010  0101
0001 010  1110  0011  0100
1111 XXX  1111  1111  1111
X000 XXX  0X10  0001  0000
