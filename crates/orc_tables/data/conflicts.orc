# Customer ports that take their MTU from a profile, and a list that walks all profiles. Each call of al is
# planned on the snapshot that was taken before the call of bo in front of it.
orc 1
yang 6
module ports { namespace "urn:ports"; prefix p; import orc { prefix orc; }
 list profile { key name; leaf name { type string; } leaf mtu { type uint16; } }
 list port { key name; leaf name { type string; } leaf router { type leafref { path "/orc:device/orc:name"; } }
  leaf profile { type leafref { path "/p:profile/p:name"; } } }
 list all { key name; leaf name { type string; } leaf router { type string; } }
}
yang 2
module router { namespace "urn:router"; prefix r;
 list interface { key name; leaf name { type string; } leaf mtu { type uint16; } } }
datamodel ports
devicetype router router
device r1 router
device r2 router
data /ports:profile[bare]
data /ports:profile[gold]/mtu = 9000
data /ports:profile[iron]/mtu = 1500
template port /ports:port 1
{"blocks":[{"device":"{router}","config":{"router:interface":[{"name":"{name}","mtu":"{/ports:profile[name=profile]/mtu}"}]}}]}
template all /ports:all 1
{"blocks":[{"for":"/ports:profile","when":"mtu","device":"r1","config":{"router:interface":[{"name":"{name}","mtu":"{mtu}"}]}}]}
script

# The MTU that al read is changed, and what al planned has the one before.
call bo 1
set /ports:profile[gold]/mtu = 8000
end
settle
call al 1
create /ports:port[s1] {"profile":"gold","router":"r1"}
end
settle

# Another profile is changed, which al didn't read.
call bo 2
set /ports:profile[iron]/mtu = 1400
end
settle
call al 2
create /ports:port[s1] {"profile":"gold","router":"r1"}
end
settle

# A profile comes while al walks them.
call bo 3
set /ports:profile[new]/mtu = 1000
end
settle
call al 3
create /ports:all[x] {"router":"r1"}
end
settle

# Both name one service.
call bo 4
redeploy /ports:port[s1]
end
settle
call al 4
modify /ports:port[s1] {"profile":"iron","router":"r2"}
end
settle

# A service that lived as al planned is gone: that is looked at before what al read.
call bo 5
delete /ports:port[s1]
end
settle
call al 5
redeploy /ports:port[s1]
end
settle

# So is whether the data is valid with the call.
call bo 6
unset /ports:profile[gold]
end
settle
call al 6
create /ports:port[s2] {"profile":"gold","router":"r1"}
end
settle

# Two services write unequal items at one path, and no read of al was touched.
call bo 7
literal hold
write r1 /router:interface[s3]/mtu = 1
end
settle
call al 7
create /ports:port[s3] {"profile":"iron","router":"r1"}
end
settle

# An entry is told once more, and a number that it took.
call bo 7
literal hold
write r1 /router:interface[s3]/mtu = 1
end
settle
call bo 7
delete hold
end
settle
