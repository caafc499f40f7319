# Compares what the calls of the library return and write with the hashes of the proved one.
check:
	$(CC) -std=c11 -O2 -Iinclude check/hashes.c lib/libi_shape.a -o check/hashes
	check/hashes -c check/hashes.txt

.PHONY: check
