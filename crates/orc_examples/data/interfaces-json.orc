# What a typed device runs, as JSON (RFC 7951): members in the order of their bytes, entries in path order, numbers
# up to 32 bits as numbers, longer ones and decimals as strings, an empty leaf as `[null]`. What has no item isn't there.
orc 1
yang 10
module if { namespace "urn:example:if"; prefix if;
  container system { leaf host { type string; } leaf boot { type int64; } leaf drift { type decimal64 { fraction-digits 3; } }
    leaf-list server { type string; } container clock { leaf offset { type int32; } } }
  list port { key "slot name"; leaf slot { type uint8; } leaf name { type string; }
    leaf mtu { type uint16; default 1500; } leaf up { type boolean; } leaf passive { type empty; }
    leaf mode { type enumeration { enum access; enum trunk; } }
    leaf-list vlan { type uint16; } leaf peer { type leafref { path "/if:port/if:name"; } }
    container counters { leaf seen { type uint64; } } }
  leaf banner { type string; }
}
yang 2
module acl { namespace "urn:example:acl"; prefix a; list rule { key number; leaf number { type int16; }
  leaf action { type string; } } }
devicetype switch if acl
devicetype filter acl
device r1 switch
device r2 switch
device f1 filter
base r1 /if:system/host = edge-1
script
json r1
json r2
json f1

call al 1
literal ports
write r1 /if:port[10][ge-0]/mtu = 9000
write r1 /if:port[2][ge-1]/up = true
write r1 /if:port[2][ge-1]/passive = 
write r1 /if:port[2][ge-1]/mode = trunk
write r1 /if:port[2][ge-1]/vlan[30]
write r1 /if:port[2][ge-1]/vlan[4]
write r1 /if:port[2][ge-1]/vlan[0100]
write r1 /if:port[2][ge-1]/peer = ge-0
write r1 /if:port[2][ge-1]/counters/seen = 18446744073709551615
write r1 /if:port[2][a"b]
literal clock
write r1 /if:system/boot = -9223372036854775808
write r1 /if:system/drift = +1.500
write r1 /if:system/clock/offset = -2147483648
write r1 /if:system/server[192.0.2.1]
write r1 /if:system/server[2001:db8::1]
literal banner
write r1 /if:banner = "no"\\\tZürich\n
write r1 /acl:rule[-5]/action = deny
write r1 /acl:rule[10]
write f1 /acl:rule[+1]
end
settle
json r1
json f1
show f1
stop
json f1
recover
reconcile
call al 2
delete clock
delete ports
delete banner
end
settle
json r1
json f1
