# SPDX-License-Identifier: MIT OR Apache-2.0
"""A mobile on the virtual radio of osmo-bts-virtual. Not proved."""
