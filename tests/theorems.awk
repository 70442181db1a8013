# Prints the theorems of a file: the names that it declares for others, but not the fields of its records.
/^ *pub record / { match($0, /^ */); record = RLENGTH; fields = 1; next }
fields && NF > 0 && $1 !~ /^--/ { match($0, /^ */); if (RLENGTH <= record) fields = 0 }
!fields && /^ *pub [a-z][a-zA-Z0-9_-]* :/ { sub(/^ *pub /, ""); sub(/ :.*/, ""); print }
