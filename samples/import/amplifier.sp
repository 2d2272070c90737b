Two stages, one after the other, and a buffer
.subckt buffer plus minus o
E1 o 0 plus minus 1e5
.ends
* the first stage
C11 in b1 1u
R11 VCC b1 100k
R12 b1 0 22k
Q1 c1 b1 e1 BC847
R13 VCC c1 4k7
R14 e1 0 1k
* coupled to the second
C12 c1 B2 10u
R21 VCC b2 100k
R22 b2 0 22k
Q2 c2 b2 e2 BC847
R23 vcc c2 4k7 ; the same net, since capitals do not count
R24 e2 0
+ 1k
X1 c2 out out buffer gain=1
V1 VCC 0 DC 12
.model BC847 NPN(BF=200
+ IS=1e-14)
.tran 1u 1m
.control
run
.endc
.end
this line is after the end
