# Plain data: profiles that an operator keeps, and what refers to them.
orc 1
yang 6
module p { namespace "urn:p"; prefix p; import orc { prefix orc; }
 list profile { key name; leaf name { type string; } leaf mtu { type uint16; } }
 list svc { key name; leaf name { type string; } leaf pe { type leafref { path "/orc:device/orc:name"; } }
  leaf prof { type leafref { path "/p:profile/p:name"; } } }
 list all { key name; leaf name { type string; } leaf pe { type string; } }
}
yang 2
module if { namespace "urn:if"; prefix if;
 list port { key name; leaf name { type string; } leaf mtu { type uint16; } } }
datamodel p
devicetype sw if
device r1 sw
data /p:profile[bare]
data /p:profile[gold]/mtu = 9000
data /p:profile[iron]/mtu = 1500
script
call al 1
set /p:svc[s1]/prof = tin
end
settle
call al 2
unset /p:profile[gold]
end
settle
data
json r1
