# Customer ports over two routers. A port takes its MTU from its profile; the bundle list walks the ports of a
# group, so its expansion reads which there are.
orc 1
yang 10
module ports { namespace "urn:ports"; prefix p; import orc { prefix orc; }
 list profile { key name; leaf name { type string; } leaf mtu { type uint16; } }
 list port { key name; leaf name { type string; }
  leaf profile { type string; }
  leaf router { type leafref { path "/orc:device/orc:name"; } } }
 list group { key name; leaf name { type string; } leaf router { type string; }
  list member { key name; leaf name { type string; } } }
 list plan { key name; leaf name { type string; } leaf group { type string; } }
 leaf note { type string; }
}
yang 3
module router { namespace "urn:router"; prefix r;
 list interface { key name; leaf name { type string; } leaf mtu { type uint16; } leaf bundle { type string; } }
}
datamodel ports
devicetype router router
device r1 router
device r2 router
base r1 /router:interface[lo0]/mtu = 65535
data /ports:profile[gold]/mtu = 9000
data /ports:profile[iron]/mtu = 1500
data /ports:profile[new]
data /ports:group[east]/router = r1
data /ports:group[east]/member[a]
data /ports:group[east]/member[b]
data /ports:group[west]/router = r2
template port /ports:port 1
{"blocks":[{"device":"{router}","config":{"router:interface":[{"name":"{name}","mtu":"{/ports:profile[name=profile]/mtu}"}]}}]}
template plan /ports:plan 2
{"blocks":[{"for":"/ports:group[name=group]/member","device":"{../router}",
 "config":{"router:interface":[{"name":"{name}","bundle":"{../name}"}]}}]}
script

# Two ports on two routers: neither needs to wait for the other.
call al 1
create /ports:port[s1] {"profile":"gold","router":"r1"}
end
settle
call bo 1
create /ports:port[s2] {"profile":"gold","router":"r2"}
end
settle

# The profile that both read.
call bo 2
set /ports:profile[gold]/mtu = 9100
end
settle
call al 2
redeploy /ports:port[s1]
end
settle

# A service that walks the members of a group, and a member that comes.
call al 3
create /ports:plan[east] {"group":"east"}
end
settle
call bo 3
set /ports:group[east]/member[c]
end
settle

# A member of another group is no part of it.
call al 4
redeploy /ports:plan[east]
end
settle
call bo 4
set /ports:group[west]/member[d]
end
settle

# Nobody reads the note; a literal service writes where a plan did, and another base is edited.
call al 5
modify /ports:port[s2] {"profile":"iron","router":"r1"}
end
settle
call bo 5
set /ports:note = changed
end
settle
call bo 6
literal hold
write r1 /router:interface[s9]/mtu = 1
base r2 /router:interface[lo0]/mtu = 65535
end
settle

# Why there is no plan: one that lives, one that doesn't, data that break a rule, a profile without an MTU.
call al 6
create /ports:port[s1] {"profile":"gold","router":"r1"}
end
settle
call al 7
redeploy /ports:port[s7]
end
settle
call al 8
create /ports:port[s7] {"profile":"gold","router":"r7"}
end
settle
call al 9
create /ports:port[s7] {"profile":"new","router":"r1"}
end
settle

# A clash is no part of a plan: it is looked for when the call is done.
call al 10
create /ports:port[s9] {"profile":"gold","router":"r1"}
end
settle
call al 11
delete /ports:port[s2]
delete hold
unset /ports:note
end
settle
