# Prints FILE:LINE of each `requires` that stands on a `pub fn`. A function's head ends at the line that opens its body, or with its file.
FNR == 1 { head = 0 }
/^[ \t]*pub (unsafe )?(extern "C" )?fn / { head = 1 }
# The two places that ask: memory for a core and for a cluster, which no value can offer.
/^pub unsafe extern "C" fn a72_(cluster_)?init_at\(/ { head = 0 }
head && /^[ \t]*requires/ { print FILENAME ":" FNR }
head && (/^[ \t]*\{[ \t]*$/ || (/\{[ \t]*$/ && !/^[ \t]*(requires|ensures)/)) { head = 0 }
