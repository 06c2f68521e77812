"""The report on an exchange; clio-report uses these modules, and those of ../explain that read a mapping and its
source.
"""
