# Services made by templates over one switch: a port takes its MTU from a profile, and another service gives each
# profile with an MTU one port.
orc 1
yang 6
module p { namespace "urn:p"; prefix p; import orc { prefix orc; }
 list profile { key name; leaf name { type string; } leaf mtu { type uint16; } }
 list svc { key name; leaf name { type string; } leaf pe { type leafref { path "/orc:device/orc:name"; } }
  leaf prof { type leafref { path "/p:profile/p:name"; } } }
 list all { key name; leaf name { type string; } leaf pe { type string; } }
}
yang 2
module if { namespace "urn:if"; prefix if;
 list port { key name; leaf name { type string; } leaf mtu { type uint16; } } }
datamodel p
devicetype sw if
device r1 sw
data /p:profile[bare]
data /p:profile[gold]/mtu = 9000
data /p:profile[iron]/mtu = 1500
template svc /p:svc 1
{"blocks":[{"device":"{pe}","config":{"if:port":[{"name":"{name}","mtu":"{/p:profile[name=prof]/mtu}"}]}}]}
template all /p:all 1
{"blocks":[{"for":"/p:profile","when":"mtu","device":"r1","config":{"if:port":[{"name":"{name}","mtu":"{mtu}"}]}}]}
script

call al 1
create /p:svc[s1] {"prof":"gold","pe":"r1"}
end
settle
show r1
call al 2
modify /p:svc[s1] {"prof":"iron","pe":"r1"}
end
settle
show r1

# A service lives once, and only one that lives is modified, deployed again or deleted.
call al 3
create /p:svc[s1] {"prof":"gold","pe":"r1"}
end
settle
call al 4
modify /p:svc[s2] {"prof":"gold","pe":"r1"}
end
settle
call al 5
redeploy /p:svc[s2]
end
settle
call al 6
delete /p:svc[s2]
end
settle

# A profile without an MTU gives no text, an unknown one breaks a leafref, and a service without a device names none.
# (expansion-faults.orc has a call for each word of Expand, and what goes before what.)
call al 7
create /p:svc[s2] {"prof":"bare","pe":"r1"}
end
settle
call al 8
create /p:svc[s2] {"prof":"tin","pe":"r1"}
end
settle
call al 9
create /p:svc[s2] {"prof":"gold"}
end
settle

# Each profile with an MTU is a port. A literal service that wants another MTU there clashes.
call al 10
create /p:all[x] {}
end
settle
show r1
call al 11
literal lit
write r1 /if:port[gold]/mtu = 1400
end
settle
call al 12
literal lit
write r1 /if:port[gold]/mtu = 9000
end
settle
meta r1 /if:port[gold]/mtu

# The profile that they stand on changes in a call that deploys one of them again: with what the literal one writes
# there it clashes; without that it goes on.
call al 13
set /p:profile[gold]/mtu = 8000
redeploy /p:all[x]
end
settle
call al 14
delete lit
set /p:profile[gold]/mtu = 8000
redeploy /p:all[x]
end
settle
show r1

# What a deleted service alone has written goes, and its data too.
call al 15
delete /p:all[x]
delete /p:svc[s1]
end
settle
show r1
data
history
