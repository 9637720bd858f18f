# A layer 3 VPN on two of three routers: a block for each endpoint gives its router the VPN's vrf and the port.
orc 1
yang 5
module vpn { namespace "urn:vpn"; prefix vpn; import orc { prefix orc; }
 list l3vpn { key name; leaf name { type string; } leaf rd { type int64; mandatory true; }
  list endpoint { key id; leaf id { type string; }
   leaf pe { type leafref { path "/orc:device/orc:name"; } mandatory true; }
   leaf vlan { type uint16; mandatory true; } } } }
yang 3
module pe { namespace "urn:pe"; prefix pe;
 list vrf { key name; leaf name { type string; } leaf rd { type int64; }
  list port { key id; leaf id { type string; } leaf vlan { type uint16 { range "1..4094"; } } } } }
datamodel vpn
devicetype router pe
device r1 router
device r2 router
device r3 router
template l3vpn /vpn:l3vpn 1
{"blocks":[{"for":"endpoint","device":"{pe}","config":{"pe:vrf":[{"name":"{../name}","rd":"{../rd}","port":[{"id":"{id}","vlan":"{vlan}"}]}]}}]}
script
call al 1
create /vpn:l3vpn[acme] {"rd":"65000","endpoint":[{"id":"e1","pe":"r1","vlan":10},{"id":"e2","pe":"r2","vlan":20}]}
end
settle
show r2
call al 2
modify /vpn:l3vpn[acme] {"rd":"65000","endpoint":[{"id":"e1","pe":"r1","vlan":10},{"id":"e2","pe":"r2","vlan":30}]}
end
settle
json r2
show r3

# A VLAN that the data allow and the routers don't; a router that isn't declared; a body without what is mandatory.
call al 3
create /vpn:l3vpn[b] {"rd":"1","endpoint":[{"id":"e1","pe":"r3","vlan":4095}]}
end
settle
call al 4
create /vpn:l3vpn[b] {"rd":"1","endpoint":[{"id":"e1","pe":"r4","vlan":5}]}
end
settle
call al 5
create /vpn:l3vpn[b] {"endpoint":[{"id":"e1","pe":"r3"}]}
end
settle

# A VPN without endpoints: its block is done nowhere, so it writes on no router. Its rd is stored in canonical form, as 1.
call al 6
create /vpn:l3vpn[b] {"rd":"+01"}
end
settle
show r3

# The endpoint moves to another router.
call al 7
modify /vpn:l3vpn[acme] {"rd":"65000","endpoint":[{"id":"e1","pe":"r1","vlan":10},{"id":"e2","pe":"r3","vlan":30}]}
end
settle
show r2
show r3
stop
recover
show r3
data
