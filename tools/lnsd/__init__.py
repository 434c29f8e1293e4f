"""What tools and trials around the server program lnsd stand on."""
