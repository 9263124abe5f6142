% Given to gringo beside cubesat.lp, so that it leaves no rule out: see docs/RULES.md.
#external charged.
#external panels.
#external eclipse_mode.
#external heater.
#external warm_latch.
#external thermostat.
#external computer.
#external imager.
#external ready.
#external payload_bus.
#external deployed.
#external warm.
#external safe.
#external image(1).
#external image(2).
#external downlink.
#external beacon.
