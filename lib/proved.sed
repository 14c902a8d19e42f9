# Of what rt says while it proves: NAME proved, for each crate that had to be proved, as it is done. For sed -un.
/^crate /{
s/^crate \([a-z0-9_]*\): .*checked=[1-9][0-9]*$/\1 proved/
s/^crate .*//
h
}
/^logic=proved/{
g
/./p
}
