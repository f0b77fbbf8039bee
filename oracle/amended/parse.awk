# Prints the original's parse.rs with a template's items read by `notes.rs` instead, which is handed
# the whole blob, and the function that would have read them.
# Fails unless the one call of that function is found, in the form expected here.

$0 == "        let items = parse_template_items(" {
    found++
    print "        let items = super::notes::read("
    print "            parse_template_items,"
    print "            crim,"
    next
}

/parse_template_items/ && $0 != "fn parse_template_items(" { other++ }

{ print }

END { exit !(found == 1 && !other) }
