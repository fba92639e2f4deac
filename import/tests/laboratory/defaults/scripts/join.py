import sys
print(sys.argv[-1])
for p in sys.argv[1:-1]: print(open(p).read().strip())
