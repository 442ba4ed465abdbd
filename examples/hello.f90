print *, this_image()
end
