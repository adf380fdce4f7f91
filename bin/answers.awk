# Prints the program's answers except 'ok'. It stops at the first error and prints it as 'error: line N: ..' for the refused line N.
/^error/ { print "error: line " NR ": " substr($0, 8); exit 1 }
$0 != "ok"
