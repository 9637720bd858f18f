# Expand: the template of this service can't be expanded on the data after the call, in this block by this rule. What to
# do: mend the body, or the data that the block looks up, in the same call.
orc 1
yang 4
module p { namespace "urn:p"; prefix p;
  list profile { key name; leaf name { type string; } leaf mtu { type uint16; } }
  list line { key port; leaf port { type string; } leaf profile { type string; } }
}
yang 3
module if { namespace "urn:if"; prefix if;
  list port { key name; leaf name { type string; } leaf mtu { type uint16; } }
}
datamodel p
devicetype switch if
device sw1 switch
template line /p:line 1
{"blocks":[{"device":"sw1","config":{"if:port":[{"name":"{port}","mtu":"{/p:profile[name=profile]/mtu}"}]}}]}
script
# There is no profile gold, so the one block has no text for the MTU.
call noc 1
create /p:line[e1] {"profile":"gold"}
end
settle
show sw1
# The same with the profile. (A call that was refused leaves its number free.)
call noc 1
set /p:profile[gold]/mtu = 9000
create /p:line[e1] {"profile":"gold"}
end
settle
show sw1
