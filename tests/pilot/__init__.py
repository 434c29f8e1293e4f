"""The pilot's trials, and what plays meters, gateways, brokers and applications around its
programs. It stands on the package bozintar, and shares no line with
pilot/bridges."""
