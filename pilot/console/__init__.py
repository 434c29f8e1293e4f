"""The console: web pages on which operators see their network, and change it if they may. It is
beside the server, like the bridges: it may lag or show something false, and no counter is used
twice because of it."""
