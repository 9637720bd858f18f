# Invalid: with the call's actions done, the operator's data would break its schema, at this path by this rule. What to
# do: say in the same call what mends it. `invalid.orc` has each rule.
orc 1
yang 5
module net { namespace "urn:example:net"; prefix n;
  list site { key name; leaf name { type string; }
    leaf asn { type uint32; mandatory true; } }
  leaf home { type leafref { path "/n:site/n:name"; } }
}
datamodel net
data /net:site[ber]/asn = 65001
data /net:home = ber
script
# A site without its asn; a home that is no site; the site that is the home.
call noc 1
set /net:site[zrh]
end
settle
call noc 1
set /net:home = gva
end
settle
call noc 1
unset /net:site[ber]
end
settle
# The actions of one call mend one another.
call noc 1
unset /net:site[ber]
set /net:site[zrh]/asn = 65002
set /net:home = zrh
end
settle
data
