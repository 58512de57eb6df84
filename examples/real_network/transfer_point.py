# SPDX-License-Identifier: MIT OR Apache-2.0
"""Settings of a signalling transfer point (osmo-stp) between the front and osmo-msc: all on one loopback. Not proved."""
from real_network.osmocom import LOG
from real_network.osmocom import SWITCH as SETTINGS_OF_SWITCH

PORT = 5061
# osmo-stp knows who connects by the name of its AS ('bsc', as unit_name of the front's settings has it) and by the address. Each
# side's messages get the point code of the other one, also within SCCP: bsc is 0.23.3, osmo-msc 0.23.1.
POINT = LOG + """line vty
 bind 127.0.0.41
cs7 instance 0
 point-code 0.23.5
 asp asp-bsc 0 5061 ipa
  local-ip 127.0.0.1
  remote-ip 127.0.0.1
  role sg
  sctp-role server
 asp asp-msc 0 5061 ipa
  local-ip 127.0.0.1
  remote-ip 127.0.0.8
  role sg
  sctp-role server
 as bsc ipa
  asp asp-bsc
  routing-key 0 0.23.3
  point-code override dpc 0.23.1
  point-code override patch-sccp both
 as msc ipa
  asp asp-msc
  routing-key 0 0.23.1
  point-code override dpc 0.23.3
  point-code override patch-sccp both
 listen ipa 5061
  local-ip 127.0.0.1
"""

# What is other in the settings of osmo-msc than where the front listens for it. The name of its ASP is the one by which it is known.
SWITCH = (("asp asp-bsc 5001 0 ipa", "asp msc 5061 0 ipa"), ("local-ip 127.0.0.1\n  role", "local-ip 127.0.0.8\n  role"),
          ("asp asp-bsc\n", "asp msc\n"))

# What the settings of the front have besides, in their table [switch]
FRONT = """connect = "127.0.0.1:5061"
unit_name = "bsc"
"""


def switch(folder: str) -> str:
    """The settings of osmo-msc, with its files in a folder."""
    text = SETTINGS_OF_SWITCH.format(folder=folder)
    for old, new in SWITCH:
        text = text.replace(old, new)
    return text
