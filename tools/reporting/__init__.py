"""What programs take on a netlist, as tools/profile.py prints it and tools/report.py shows it: how
often words run, what of the hardware they use, and the page with it.
"""
