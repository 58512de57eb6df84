# SPDX-License-Identifier: MIT OR Apache-2.0
"""Settings of the programs of Osmocom for examples/network: all on one loopback. Not proved."""

# the terminals (VTY) of osmo-msc and osmo-hlr
SWITCH_TERMINAL = 4254
REGISTER_TERMINAL = 4258

LOG = """log stderr
 logging filter all 1
 logging color 0
 logging print category 1
 logging level set-all notice
"""

REGISTER = LOG + """line vty
 bind 127.0.0.1
ctrl
 bind 127.0.0.1
hlr
 gsup
  bind ip 127.0.0.1
"""

GATEWAY = LOG + """line vty
 bind 127.0.0.1
mgcp
 bind ip 127.0.0.1
 bind port 2427
 rtp bind-ip 127.0.0.1
 number endpoints 31
"""

# It has point code 0.23.1, and bsc 0.23.3. No ciphering, since bsc has none.
SWITCH = LOG + """ logging level cc info
 logging level rll info
line vty
 bind 127.0.0.1
ctrl
 bind 127.0.0.1
cs7 instance 0
 point-code 0.23.1
 asp asp-bsc 5001 0 ipa
  remote-ip 127.0.0.1
  local-ip 127.0.0.1
  role asp
  sctp-role client
 as as-bsc ipa
  asp asp-bsc
  routing-key 0 0.23.1
  point-code override dpc 0.23.3
  point-code override patch-sccp both
 as as-out ipa
  asp asp-bsc
  routing-key 0 0.23.3
network
 network country code 001
 mobile network code 01
 authentication optional
 encryption a5 0
msc
 cs7-instance-a 0
 mgw remote-ip 127.0.0.1
 mgw remote-port 2427
hlr
 remote-ip 127.0.0.1
 remote-port 4222
smsc
 database {folder}/short-messages.db
"""

# Station N has terminal and control port on 127.0.0.N, and the unit id N/0.
STATION = LOG + """line vty
 bind 127.0.0.{number}
ctrl
 bind 127.0.0.{number}
phy 0
 virtual-um net-device lo
 virtual-um ttl 0
 instance 0
bts 0
 band GSM900
 ipa unit-id {number} 0
 oml remote-ip 127.0.0.1
 pcu-socket {folder}/packet-control-{number}
 trx 0
  phy 0 instance 0
"""

# The settings of bsc. The front reads a copy in which the first cell's port is that of a program that can delay it.
BSC = """[network]
mcc = "001"
mnc = "01"
[switch]
address = "127.0.0.1:5000"
[timers]
drain_ms = 4000
[handover1]
window_rxlev_averaging = 2
window_rxlev_neighbor_averaging = 2
power_budget_interval = 2
[[cell]]
listen = "{first}:3003"
lac = 1
ci = 1
arfcn = 20
bsic = 9
channels = [0x41, 0x49, 0x51, 0x59, 0x0a, 0x0b, 0x0c]
[[cell]]
listen = "127.0.0.1:3004"
lac = 1
ci = 2
arfcn = 30
bsic = 18
channels = [0x41, 0x49, 0x51, 0x59, 0x0a, 0x0b, 0x0c]
"""

FRONT = """[station]
oml = "127.0.0.1:3002"
rsl = "127.0.0.2:3003"
[switch]
listen = "127.0.0.1:5001"
point_code = "0.23.3"
speech_codec = "80"
speech_address = "127.0.0.1:40000"
"""
