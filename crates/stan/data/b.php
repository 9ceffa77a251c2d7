<?php
f( ;
