# The data may become invalid with a call by what was committed since its snapshot.
orc 1
yang 6
module p { namespace "urn:p"; prefix p; import orc { prefix orc; }
 list profile { key name; leaf name { type string; } leaf mtu { type uint16; } }
 list svc { key name; leaf name { type string; } leaf pe { type leafref { path "/orc:device/orc:name"; } }
  leaf prof { type leafref { path "/p:profile/p:name"; } } }
 list all { key name; leaf name { type string; } leaf pe { type string; } }
}
yang 2
module if { namespace "urn:if"; prefix if;
 list port { key name; leaf name { type string; } leaf mtu { type uint16; } } }
datamodel p
devicetype sw if
device r1 sw
data /p:profile[bare]
data /p:profile[gold]/mtu = 9000
data /p:profile[iron]/mtu = 1500
template svc /p:svc 1
{"blocks":[{"device":"{pe}","config":{"if:port":[{"name":"{name}","mtu":"{/p:profile[name=prof]/mtu}"}]}}]}
template all /p:all 1
{"blocks":[{"for":"/p:profile","when":"mtu","device":"r1","config":{"if:port":[{"name":"{name}","mtu":"{mtu}"}]}}]}
script
begin bo
call al 1
unset /p:profile[gold]
end
settle
call bo 1
create /p:svc[s1] {"prof":"gold","pe":"r1"}
end
settle
