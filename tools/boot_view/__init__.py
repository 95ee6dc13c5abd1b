"""The picture and the page of a boot. `boot_view.picture` lays out, `boot_view.svg` and `boot_view.page` write."""
