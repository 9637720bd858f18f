# Two services that write one entry alike share it, here two customers on one VLAN of one port. A leaf in the entry with the
# service's own name makes that a clash.
orc 1
yang 6
module svc { namespace "urn:svc"; prefix svc;
 list shared { key name; leaf name { type string; } leaf pe { type string; } leaf port { type string; }
  leaf vlan { type uint16; } }
 list owned { key name; leaf name { type string; } leaf pe { type string; } leaf port { type string; }
  leaf vlan { type uint16; } }
}
yang 3
module if { namespace "urn:if"; prefix if;
 list port { key name; leaf name { type string; }
  list unit { key vlan; leaf vlan { type uint16 { range "1..4094"; } } leaf owner { type string; } } } }
datamodel svc
devicetype router if
device pe1 router
template shared /svc:shared 1
{"blocks":[{"device":"{pe}","config":{"if:port":[{"name":"{port}","unit":[{"vlan":"{vlan}"}]}]}}]}
template owned /svc:owned 1
{"blocks":[{"device":"{pe}","config":{"if:port":[{"name":"{port}","unit":[{"vlan":"{vlan}","owner":"{name}"}]}]}}]}
script
call noc 1
create /svc:shared[acme] {"pe":"pe1","port":"ge-0","vlan":101}
end
settle
call noc 2
create /svc:shared[globex] {"pe":"pe1","port":"ge-0","vlan":101}
end
settle
meta pe1 /if:port[ge-0]/unit[101]
call noc 3
create /svc:owned[initech] {"pe":"pe1","port":"ge-0","vlan":102}
end
settle
call noc 4
create /svc:owned[hooli] {"pe":"pe1","port":"ge-0","vlan":102}
end
settle
json pe1
