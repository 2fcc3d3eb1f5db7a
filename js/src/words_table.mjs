/* Words for numbers, and which fields have them, as profile/words.tsv and profile/subfields.tsv of the project. profile/make writes this file. */

/* Of each type its numbers with their words. */
export const WORDS = {
    activity: {
        0: "manual", 1: "auto_multi_sport",
    },
    activity_type: {
        0: "generic", 1: "running", 2: "cycling", 3: "transition", 4: "fitness_equipment", 5: "swimming", 6: "walking",
        8: "sedentary", 254: "all",
    },
    ant_network: {
        0: "public", 1: "antplus", 2: "antfs", 3: "private",
    },
    antplus_device_type: {
        1: "antfs", 11: "bike_power", 12: "environment_sensor_legacy", 15: "multi_sport_speed_distance", 16: "control",
        17: "fitness_equipment", 18: "blood_pressure", 19: "geocache_node", 20: "light_electric_vehicle", 25: "env_sensor",
        26: "racquet", 27: "control_hub", 31: "muscle_oxygen", 34: "shifting", 35: "bike_light_main",
        36: "bike_light_shared", 38: "exd", 40: "bike_radar", 46: "bike_aero", 119: "weight_scale", 120: "heart_rate",
        121: "bike_speed_cadence", 122: "bike_cadence", 123: "bike_speed", 124: "stride_speed_distance",
    },
    auto_sync_frequency: {
        0: "never", 1: "occasionally", 2: "frequent", 3: "once_a_day", 4: "remote",
    },
    backlight_mode: {
        0: "off", 1: "manual", 2: "key_and_messages", 3: "auto_brightness", 4: "smart_notifications",
        5: "key_and_messages_night", 6: "key_and_messages_and_smart_notifications",
    },
    battery_status: {
        1: "new", 2: "good", 3: "ok", 4: "low", 5: "critical", 6: "charging", 7: "unknown",
    },
    ble_device_type: {
        0: "connected_gps", 1: "heart_rate", 2: "bike_power", 3: "bike_speed_cadence", 4: "bike_speed", 5: "bike_cadence",
        6: "footpod", 7: "bike_trainer",
    },
    body_location: {
        0: "left_leg", 1: "left_calf", 2: "left_shin", 3: "left_hamstring", 4: "left_quad", 5: "left_glute", 6: "right_leg",
        7: "right_calf", 8: "right_shin", 9: "right_hamstring", 10: "right_quad", 11: "right_glute", 12: "torso_back",
        13: "left_lower_back", 14: "left_upper_back", 15: "right_lower_back", 16: "right_upper_back", 17: "torso_front",
        18: "left_abdomen", 19: "left_chest", 20: "right_abdomen", 21: "right_chest", 22: "left_arm", 23: "left_shoulder",
        24: "left_bicep", 25: "left_tricep", 26: "left_brachioradialis", 27: "left_forearm_extensors", 28: "right_arm",
        29: "right_shoulder", 30: "right_bicep", 31: "right_tricep", 32: "right_brachioradialis",
        33: "right_forearm_extensors", 34: "neck", 35: "throat", 36: "waist_mid_back", 37: "waist_front", 38: "waist_left",
        39: "waist_right",
    },
    climb_pro_event: {
        0: "approach", 1: "start", 2: "complete",
    },
    comm_timeout_type: {
        0: "wildcard_pairing_timeout", 1: "pairing_timeout", 2: "connection_lost", 3: "connection_timeout",
    },
    course_point: {
        0: "generic", 1: "summit", 2: "valley", 3: "water", 4: "food", 5: "danger", 6: "left", 7: "right", 8: "straight",
        9: "first_aid", 10: "fourth_category", 11: "third_category", 12: "second_category", 13: "first_category",
        14: "hors_category", 15: "sprint", 16: "left_fork", 17: "right_fork", 18: "middle_fork", 19: "slight_left",
        20: "sharp_left", 21: "slight_right", 22: "sharp_right", 23: "u_turn", 24: "segment_start", 25: "segment_end",
        27: "campsite", 28: "aid_station", 29: "rest_area", 30: "general_distance", 31: "service", 32: "energy_gel",
        33: "sports_drink", 34: "mile_marker", 35: "checkpoint", 36: "shelter", 37: "meeting_spot", 38: "overlook",
        39: "toilet", 40: "shower", 41: "gear", 42: "sharp_curve", 43: "steep_incline", 44: "tunnel", 45: "bridge",
        46: "obstacle", 47: "crossing", 48: "store", 49: "transition", 50: "navaid", 51: "transport", 52: "alert",
        53: "info",
    },
    date_mode: {
        0: "day_month", 1: "month_day",
    },
    display_heart: {
        0: "bpm", 1: "max", 2: "reserve",
    },
    display_measure: {
        0: "metric", 1: "statute", 2: "nautical",
    },
    display_orientation: {
        0: "auto", 1: "portrait", 2: "landscape", 3: "portrait_flipped", 4: "landscape_flipped",
    },
    display_position: {
        0: "degree", 1: "degree_minute", 2: "degree_minute_second", 3: "austrian_grid", 4: "british_grid", 5: "dutch_grid",
        6: "hungarian_grid", 7: "finnish_grid", 8: "german_grid", 9: "icelandic_grid",
    },
    display_power: {
        0: "watts", 1: "percent_ftp",
    },
    event: {
        0: "timer", 3: "workout", 4: "workout_step", 5: "power_down", 6: "power_up", 7: "off_course", 8: "session",
        9: "lap", 10: "course_point", 11: "battery", 12: "virtual_partner_pace", 13: "hr_high_alert", 14: "hr_low_alert",
        15: "speed_high_alert", 16: "speed_low_alert", 17: "cad_high_alert", 18: "cad_low_alert", 19: "power_high_alert",
        20: "power_low_alert", 21: "recovery_hr", 22: "battery_low", 23: "time_duration_alert",
        24: "distance_duration_alert", 25: "calorie_duration_alert", 26: "activity", 27: "fitness_equipment", 28: "length",
        32: "user_marker", 33: "sport_point", 36: "calibration", 42: "front_gear_change", 43: "rear_gear_change",
        44: "rider_position_change", 45: "elev_high_alert", 46: "elev_low_alert", 47: "comm_timeout",
        54: "auto_activity_detect", 56: "dive_alert", 57: "dive_gas_switched", 71: "tank_pressure_reserve",
        72: "tank_pressure_critical", 73: "tank_lost", 75: "radar_threat_alert", 76: "tank_battery_low",
        81: "tank_pod_connected", 82: "tank_pod_disconnected",
    },
    event_type: {
        0: "start", 1: "stop", 2: "consecutive_depreciated", 3: "marker", 4: "stop_all", 5: "begin_depreciated",
        6: "end_depreciated", 7: "end_all_depreciated", 8: "stop_disable", 9: "stop_disable_all",
    },
    exercise_category: {
        0: "bench_press", 1: "calf_raise", 2: "cardio", 3: "carry", 4: "chop", 5: "core", 6: "crunch", 7: "curl",
        8: "deadlift", 9: "flye", 10: "hip_raise", 11: "hip_stability", 12: "hip_swing", 13: "hyperextension",
        14: "lateral_raise", 15: "leg_curl", 16: "leg_raise", 17: "lunge", 18: "olympic_lift", 19: "plank", 20: "plyo",
        21: "pull_up", 22: "push_up", 23: "row", 24: "shoulder_press", 25: "shoulder_stability", 26: "shrug", 27: "sit_up",
        28: "squat", 29: "total_body", 30: "triceps_extension", 31: "warm_up", 32: "run", 65534: "unknown",
    },
    favero_product: {
        10: "assioma_uno", 12: "assioma_duo",
    },
    file: {
        1: "device", 2: "settings", 3: "sport", 4: "activity", 5: "workout", 6: "course", 7: "schedules", 9: "weight",
        10: "totals", 11: "goals", 14: "blood_pressure", 15: "monitoring_a", 20: "activity_summary", 28: "monitoring_daily",
        32: "monitoring_b", 34: "segment", 35: "segment_list", 40: "exd_configuration",
    },
    fit_base_type: {
        0: "enum", 1: "sint8", 2: "uint8", 7: "string", 10: "uint8z", 13: "byte", 131: "sint16", 132: "uint16",
        133: "sint32", 134: "uint32", 136: "float32", 137: "float64", 139: "uint16z", 140: "uint32z", 142: "sint64",
        143: "uint64", 144: "uint64z",
    },
    fit_base_unit: {
        0: "other", 1: "kilogram", 2: "pound",
    },
    fitness_equipment_state: {
        0: "ready", 1: "in_use", 2: "paused", 3: "unknown",
    },
    garmin_product: {
        1: "hrm1", 2: "axh01", 3: "axb01", 4: "axb02", 5: "hrm2ss", 6: "dsi_alf02", 7: "hrm3ss",
        8: "hrm_run_single_byte_product_id", 9: "bsm", 10: "bcm", 11: "axs01", 12: "hrm_tri_single_byte_product_id",
        13: "hrm4_run_single_byte_product_id", 14: "fr225_single_byte_product_id", 15: "gen3_bsm_single_byte_product_id",
        16: "gen3_bcm_single_byte_product_id", 473: "fr301_china", 474: "fr301_japan", 475: "fr301_korea",
        494: "fr301_taiwan", 717: "fr405", 782: "fr50", 987: "fr405_japan", 988: "fr60", 1011: "dsi_alf01", 1018: "fr310xt",
        1036: "edge500", 1124: "fr110", 1169: "edge800", 1199: "edge500_taiwan", 1213: "edge500_japan", 1253: "chirp",
        1274: "fr110_japan", 1325: "edge200", 1328: "fr910xt", 1333: "edge800_taiwan", 1334: "edge800_japan", 1341: "alf04",
        1345: "fr610", 1360: "fr210_japan", 1380: "vector_ss", 1381: "vector_cp", 1386: "edge800_china",
        1387: "edge500_china", 1405: "approach_g10", 1410: "fr610_japan", 1422: "edge500_korea", 1436: "fr70",
        1446: "fr310xt_4t", 1461: "amx", 1482: "fr10", 1497: "edge800_korea", 1499: "swim", 1537: "fr910xt_china",
        1551: "fenix", 1555: "edge200_taiwan", 1561: "edge510", 1567: "edge810", 1570: "tempe", 1600: "fr910xt_japan",
        1623: "fr620", 1632: "fr220", 1664: "fr910xt_korea", 1688: "fr10_japan", 1721: "edge810_japan", 1735: "virb_elite",
        1736: "edge_touring", 1742: "edge510_japan", 1743: "hrm_tri", 1752: "hrm_run", 1765: "fr920xt",
        1821: "edge510_asia", 1822: "edge810_china", 1823: "edge810_taiwan", 1836: "edge1000", 1837: "vivo_fit",
        1853: "virb_remote", 1885: "vivo_ki", 1903: "fr15", 1907: "vivo_active", 1918: "edge510_korea", 1928: "fr620_japan",
        1929: "fr620_china", 1930: "fr220_japan", 1931: "fr220_china", 1936: "approach_s6", 1956: "vivo_smart",
        1967: "fenix2", 1988: "epix", 2050: "fenix3", 2052: "edge1000_taiwan", 2053: "edge1000_japan", 2061: "fr15_japan",
        2067: "edge520", 2070: "edge1000_china", 2072: "fr620_russia", 2073: "fr220_russia", 2079: "vector_s",
        2100: "edge1000_korea", 2130: "fr920xt_taiwan", 2131: "fr920xt_china", 2132: "fr920xt_japan", 2134: "virbx",
        2135: "vivo_smart_apac", 2140: "etrex_touch", 2147: "edge25", 2148: "fr25", 2150: "vivo_fit2", 2153: "fr225",
        2156: "fr630", 2157: "fr230", 2158: "fr735xt", 2160: "vivo_active_apac", 2161: "vector_2", 2162: "vector_2s",
        2172: "virbxe", 2173: "fr620_taiwan", 2174: "fr220_taiwan", 2175: "truswing", 2188: "fenix3_china",
        2189: "fenix3_twn", 2192: "varia_headlight", 2193: "varia_taillight_old", 2204: "edge_explore_1000",
        2219: "fr225_asia", 2225: "varia_radar_taillight", 2226: "varia_radar_display", 2238: "edge20", 2262: "d2_bravo",
        2266: "approach_s20", 2276: "varia_remote", 2327: "hrm4_run", 2337: "vivo_active_hr", 2347: "vivo_smart_gps_hr",
        2348: "vivo_smart_hr", 2368: "vivo_move", 2398: "varia_vision", 2406: "vivo_fit3", 2413: "fenix3_hr",
        2417: "virb_ultra_30", 2429: "index_smart_scale", 2431: "fr235", 2432: "fenix3_chronos", 2441: "oregon7xx",
        2444: "rino7xx", 2496: "nautix", 2503: "fr35", 2530: "edge_820", 2531: "edge_explore_820", 2544: "fenix5s",
        2547: "d2_bravo_titanium", 2567: "varia_ut800", 2593: "running_dynamics_pod", 2604: "fenix5x", 2606: "vivo_fit_jr",
        2622: "vivo_smart3", 2623: "vivo_sport", 2656: "approach_s60", 2687: "virb_360", 2691: "fr935", 2697: "fenix5",
        2700: "vivoactive3", 2713: "edge_1030", 2772: "vivo_move_hr", 2787: "vector_3", 2806: "approach_z80",
        2819: "d2charlie", 2859: "descent", 2878: "vivo_fit4", 2886: "fr645", 2888: "fr645m", 2891: "fr30",
        2900: "fenix5s_plus", 2909: "edge_130", 2927: "vivo_smart4", 2962: "approach_x10", 2988: "vivoactive3m_w",
        3011: "edge_explore", 3028: "gpsmap66", 3049: "approach_s10", 3066: "vivoactive3m_l", 3076: "fr245",
        3077: "fr245_music", 3085: "approach_g80", 3110: "fenix5_plus", 3111: "fenix5x_plus", 3112: "edge_520_plus",
        3113: "fr945", 3121: "edge_530", 3122: "edge_830", 3143: "descent_t1", 3192: "gen3_bsm", 3193: "gen3_bcm",
        3224: "vivo_active4_small", 3225: "vivo_active4_large", 3226: "venu", 3246: "marq_driver", 3247: "marq_aviator",
        3248: "marq_captain", 3249: "marq_commander", 3250: "marq_expedition", 3251: "marq_athlete", 3258: "descent_mk2",
        3284: "gpsmap66i", 3287: "fenix6s_sport", 3288: "fenix6s", 3289: "fenix6_sport", 3290: "fenix6", 3291: "fenix6x",
        3299: "hrm_dual", 3300: "hrm_pro", 3308: "vivo_move3_premium", 3314: "approach_s40", 3378: "vivo_move3",
        3405: "swim2", 3466: "instinct_solar", 3542: "descent_mk2s", 3558: "edge_130_plus", 3570: "edge_1030_plus",
        3578: "rally_200", 3589: "fr745", 3600: "venusq", 3615: "lily", 3624: "marq_adventurer", 3638: "enduro",
        3652: "fr945_lte", 3703: "venu2", 3704: "venu2s", 3843: "edge_1040", 3851: "venu2_plus", 3869: "fr55",
        3888: "instinct_2", 3905: "fenix7s", 3906: "fenix7", 3907: "fenix7x", 3943: "epix_gen2", 3990: "fr255_music",
        3991: "fr255_small_music", 3992: "fr255", 3993: "fr255_small", 4024: "fr955", 4061: "edge_540", 4062: "edge_840",
        4063: "vivosmart_5", 4130: "hrm_pro_plus", 4169: "edge_explore2", 4257: "fr265_large", 4258: "fr265_small",
        4260: "venu3", 4261: "venu3s", 4315: "fr965", 10007: "sdm4", 10014: "edge_remote", 20119: "training_center",
        65531: "connectiq_simulator", 65532: "android_antplus_plugin", 65534: "connect",
    },
    gender: {
        0: "female", 1: "male",
    },
    hr_zone_calc: {
        0: "custom", 1: "percent_max_hr", 2: "percent_hrr",
    },
    intensity: {
        0: "active", 1: "rest", 2: "warmup", 3: "cooldown", 4: "recovery", 5: "interval", 6: "other",
    },
    language: {
        0: "english", 1: "french", 2: "italian", 3: "german", 4: "spanish", 5: "croatian", 6: "czech", 7: "danish",
        8: "dutch", 9: "finnish", 10: "greek", 11: "hungarian", 12: "norwegian", 13: "polish", 14: "portuguese",
        15: "slovakian", 16: "slovenian", 17: "swedish", 18: "russian", 19: "turkish", 20: "latvian", 21: "ukrainian",
        22: "arabic", 23: "farsi", 24: "bulgarian", 25: "romanian", 26: "chinese", 27: "japanese", 28: "korean",
        29: "taiwanese", 30: "thai", 31: "hebrew", 32: "brazilian_portuguese", 33: "indonesian", 34: "malaysian",
        35: "vietnamese", 36: "burmese", 37: "mongolian", 254: "custom",
    },
    lap_trigger: {
        0: "manual", 1: "time", 2: "distance", 3: "position_start", 4: "position_lap", 5: "position_waypoint",
        6: "position_marked", 7: "session_end", 8: "fitness_equipment",
    },
    length_type: {
        0: "idle", 1: "active",
    },
    local_device_type: {
        0: "gps", 1: "glonass", 2: "gps_glonass", 3: "accelerometer", 4: "barometer", 5: "temperature", 10: "whr",
        12: "sensor_hub",
    },
    manufacturer: {
        1: "garmin", 2: "garmin_fr405_antfs", 3: "zephyr", 4: "dayton", 5: "idt", 6: "srm", 7: "quarq", 8: "ibike",
        9: "saris", 10: "spark_hk", 11: "tanita", 12: "echowell", 13: "dynastream_oem", 14: "nautilus", 15: "dynastream",
        16: "timex", 17: "metrigear", 18: "xelic", 19: "beurer", 20: "cardiosport", 21: "a_and_d", 22: "hmm", 23: "suunto",
        24: "thita_elektronik", 25: "gpulse", 26: "clean_mobile", 27: "pedal_brain", 28: "peaksware", 29: "saxonar",
        30: "lemond_fitness", 31: "dexcom", 32: "wahoo_fitness", 33: "octane_fitness", 34: "archinoetics",
        35: "the_hurt_box", 36: "citizen_systems", 37: "magellan", 38: "osynce", 39: "holux", 40: "concept2", 41: "shimano",
        42: "one_giant_leap", 43: "ace_sensor", 44: "brim_brothers", 45: "xplova", 46: "perception_digital",
        47: "bf1systems", 48: "pioneer", 49: "spantec", 50: "metalogics", 51: "4iiiis", 52: "seiko_epson",
        53: "seiko_epson_oem", 54: "ifor_powell", 55: "maxwell_guider", 56: "star_trac", 57: "breakaway",
        58: "alatech_technology_ltd", 59: "mio_technology_europe", 60: "rotor", 61: "geonaute", 62: "id_bike",
        63: "specialized", 64: "wtek", 65: "physical_enterprises", 66: "north_pole_engineering", 67: "bkool", 68: "cateye",
        69: "stages_cycling", 70: "sigmasport", 71: "tomtom", 72: "peripedal", 73: "wattbike", 76: "moxy", 77: "ciclosport",
        78: "powerbahn", 79: "acorn_projects_aps", 80: "lifebeam", 81: "bontrager", 82: "wellgo", 83: "scosche",
        84: "magura", 85: "woodway", 86: "elite", 87: "nielsen_kellerman", 88: "dk_city", 89: "tacx",
        90: "direction_technology", 91: "magtonic", 92: "1partcarbon", 93: "inside_ride_technologies",
        94: "sound_of_motion", 95: "stryd", 96: "icg", 97: "mipulse", 98: "bsx_athletics", 99: "look",
        100: "campagnolo_srl", 101: "body_bike_smart", 102: "praxisworks", 103: "limits_technology",
        104: "topaction_technology", 105: "cosinuss", 106: "fitcare", 107: "magene", 108: "giant_manufacturing_co",
        109: "tigrasport", 110: "salutron", 111: "technogym", 112: "bryton_sensors", 113: "latitude_limited",
        114: "soaring_technology", 115: "igpsport", 116: "thinkrider", 117: "gopher_sport", 118: "waterrower",
        119: "orangetheory", 120: "inpeak", 121: "kinetic", 122: "johnson_health_tech", 123: "polar_electro",
        124: "seesense", 125: "nci_technology", 126: "iqsquare", 127: "leomo", 128: "ifit_com", 129: "coros_byte",
        130: "versa_design", 131: "chileaf", 132: "cycplus", 133: "gravaa_byte", 134: "sigeyi", 135: "coospo", 136: "geoid",
        137: "bosch", 138: "kyto", 139: "kinetic_sports", 140: "decathlon_byte", 141: "tq_systems", 142: "tag_heuer",
        143: "keiser_fitness", 144: "zwift_byte", 145: "porsche_ep", 146: "blackbird", 147: "meilan_byte", 148: "ezon",
        149: "laisi", 150: "myzone", 151: "abawo", 152: "bafang", 255: "development", 257: "healthandlife", 258: "lezyne",
        259: "scribe_labs", 260: "zwift", 261: "watteam", 262: "recon", 263: "favero_electronics", 264: "dynovelo",
        265: "strava", 266: "precor", 267: "bryton", 268: "sram", 269: "navman", 270: "cobi", 271: "spivi",
        272: "mio_magellan", 273: "evesports", 274: "sensitivus_gauge", 275: "podoon", 276: "life_time_fitness",
        277: "falco_e_motors", 278: "minoura", 279: "cycliq", 280: "luxottica", 281: "trainer_road", 282: "the_sufferfest",
        283: "fullspeedahead", 284: "virtualtraining", 285: "feedbacksports", 286: "omata", 287: "vdo", 288: "magneticdays",
        289: "hammerhead", 290: "kinetic_by_kurt", 291: "shapelog", 292: "dabuziduo", 293: "jetblack", 294: "coros",
        295: "virtugo", 296: "velosense", 297: "cycligentinc", 298: "trailforks", 299: "mahle_ebikemotion", 300: "nurvv",
        301: "microprogram", 302: "zone5cloud", 303: "greenteg", 304: "yamaha_motors", 305: "whoop", 306: "gravaa",
        307: "onelap", 308: "monark_exercise", 309: "form", 310: "decathlon", 311: "syncros", 312: "heatup",
        313: "cannondale", 314: "true_fitness", 315: "rgt_cycling", 316: "vasa", 317: "race_republic", 318: "fazua",
        319: "oreka_training", 321: "lululemon_studio", 322: "shanyue", 5759: "actigraphcorp",
    },
    mesg_num: {
        0: "file_id", 2: "device_settings", 3: "user_profile", 7: "zones_target", 8: "hr_zone", 9: "power_zone",
        12: "sport", 18: "session", 19: "lap", 20: "record", 21: "event", 23: "device_info", 26: "workout",
        27: "workout_step", 31: "course", 32: "course_point", 34: "activity", 49: "file_creator", 53: "speed_zone",
        72: "training_file", 78: "hrv", 101: "length", 131: "cadence_zone", 132: "hr", 160: "gps_metadata",
        162: "timestamp_correlation", 206: "field_description", 207: "developer_data_id", 216: "time_in_zone", 225: "set",
        285: "jump", 312: "split", 313: "split_summary", 317: "climb_pro",
    },
    pwr_zone_calc: {
        0: "custom", 1: "percent_ftp",
    },
    rider_position_type: {
        0: "seated", 1: "standing", 2: "transition_to_seated", 3: "transition_to_standing",
    },
    session_trigger: {
        0: "activity_end", 1: "manual", 2: "auto_multi_sport", 3: "fitness_equipment",
    },
    set_type: {
        0: "rest", 1: "active",
    },
    side: {
        0: "right", 1: "left",
    },
    source_type: {
        0: "ant", 1: "antplus", 2: "bluetooth", 3: "bluetooth_low_energy", 4: "wifi", 5: "local",
    },
    split_type: {
        1: "ascent_split", 2: "descent_split", 3: "interval_active", 4: "interval_rest", 5: "interval_warmup",
        6: "interval_cooldown", 7: "interval_recovery", 8: "interval_other", 9: "climb_active", 10: "climb_rest",
        11: "surf_active", 12: "run_active", 13: "run_rest", 14: "workout_round", 17: "rwd_run", 18: "rwd_walk",
        21: "windsurf_active", 22: "rwd_stand", 23: "transition", 28: "ski_lift_split", 29: "ski_run_split",
    },
    sport: {
        0: "generic", 1: "running", 2: "cycling", 3: "transition", 4: "fitness_equipment", 5: "swimming", 6: "basketball",
        7: "soccer", 8: "tennis", 9: "american_football", 10: "training", 11: "walking", 12: "cross_country_skiing",
        13: "alpine_skiing", 14: "snowboarding", 15: "rowing", 16: "mountaineering", 17: "hiking", 18: "multisport",
        19: "paddling", 20: "flying", 21: "e_biking", 22: "motorcycling", 23: "boating", 24: "driving", 25: "golf",
        26: "hang_gliding", 27: "horseback_riding", 28: "hunting", 29: "fishing", 30: "inline_skating", 31: "rock_climbing",
        32: "sailing", 33: "ice_skating", 34: "sky_diving", 35: "snowshoeing", 36: "snowmobiling",
        37: "stand_up_paddleboarding", 38: "surfing", 39: "wakeboarding", 40: "water_skiing", 41: "kayaking", 42: "rafting",
        43: "windsurfing", 44: "kitesurfing", 45: "tactical", 46: "jumpmaster", 47: "boxing", 48: "floor_climbing",
        49: "baseball", 53: "diving", 62: "hiit", 64: "racket", 65: "wheelchair_push_walk", 66: "wheelchair_push_run",
        67: "meditation", 69: "para_sport", 70: "disc_golf", 71: "team_sport", 72: "cricket", 73: "rugby", 74: "hockey",
        75: "lacrosse", 76: "volleyball", 77: "water_tubing", 78: "wakesurfing", 79: "water_sport", 80: "archery",
        81: "mixed_martial_arts", 82: "motor_sports", 83: "snorkeling", 84: "dance", 85: "jump_rope", 254: "all",
    },
    stroke_type: {
        0: "no_event", 1: "other", 2: "serve", 3: "forehand", 4: "backhand", 5: "smash",
    },
    sub_sport: {
        0: "generic", 1: "treadmill", 2: "street", 3: "trail", 4: "track", 5: "spin", 6: "indoor_cycling", 7: "road",
        8: "mountain", 9: "downhill", 10: "recumbent", 11: "cyclocross", 12: "hand_cycling", 13: "track_cycling",
        14: "indoor_rowing", 15: "elliptical", 16: "stair_climbing", 17: "lap_swimming", 18: "open_water",
        19: "flexibility_training", 20: "strength_training", 21: "warm_up", 22: "match", 23: "exercise", 24: "challenge",
        25: "indoor_skiing", 26: "cardio_training", 27: "indoor_walking", 28: "e_bike_fitness", 29: "bmx",
        30: "casual_walking", 31: "speed_walking", 32: "bike_to_run_transition", 33: "run_to_bike_transition",
        34: "swim_to_bike_transition", 35: "atv", 36: "motocross", 37: "backcountry", 38: "resort", 39: "rc_drone",
        40: "wingsuit", 41: "whitewater", 42: "skate_skiing", 43: "yoga", 44: "pilates", 45: "indoor_running",
        46: "gravel_cycling", 47: "e_bike_mountain", 48: "commuting", 49: "mixed_surface", 50: "navigate", 51: "track_me",
        52: "map", 53: "single_gas_diving", 54: "multi_gas_diving", 55: "gauge_diving", 56: "apnea_diving",
        57: "apnea_hunting", 58: "virtual_activity", 59: "obstacle", 62: "breathing", 63: "ccr_diving", 65: "sail_race",
        66: "expedition", 67: "ultra", 68: "indoor_climbing", 69: "bouldering", 70: "hiit", 73: "amrap", 74: "emom",
        75: "tabata", 77: "esport", 78: "triathlon", 79: "duathlon", 80: "brick", 81: "swim_run", 82: "adventure_race",
        84: "pickleball", 85: "padel", 86: "indoor_wheelchair_walk", 87: "indoor_wheelchair_run", 88: "indoor_hand_cycling",
        94: "squash", 95: "badminton", 96: "racquetball", 97: "table_tennis", 110: "fly_canopy", 111: "fly_paraglide",
        112: "fly_paramotor", 113: "fly_pressurized", 114: "fly_navigate", 115: "fly_timer", 116: "fly_altimeter",
        117: "fly_wx", 118: "fly_vfr", 119: "fly_ifr", 254: "all",
    },
    swim_stroke: {
        0: "freestyle", 1: "backstroke", 2: "breaststroke", 3: "butterfly", 4: "drill", 5: "mixed", 6: "im",
        7: "im_by_round", 8: "rimo",
    },
    time_mode: {
        0: "hour12", 1: "hour24", 2: "military", 3: "hour_12_with_seconds", 4: "hour_24_with_seconds", 5: "utc",
    },
    timer_trigger: {
        0: "manual", 1: "auto", 2: "fitness_equipment",
    },
    wkt_step_duration: {
        0: "time", 1: "distance", 2: "hr_less_than", 3: "hr_greater_than", 4: "calories", 5: "open",
        6: "repeat_until_steps_cmplt", 7: "repeat_until_time", 8: "repeat_until_distance", 9: "repeat_until_calories",
        10: "repeat_until_hr_less_than", 11: "repeat_until_hr_greater_than", 12: "repeat_until_power_less_than",
        13: "repeat_until_power_greater_than", 14: "power_less_than", 15: "power_greater_than", 16: "training_peaks_tss",
        17: "repeat_until_power_last_lap_less_than", 18: "repeat_until_max_power_last_lap_less_than",
        19: "power_3s_less_than", 20: "power_10s_less_than", 21: "power_30s_less_than", 22: "power_3s_greater_than",
        23: "power_10s_greater_than", 24: "power_30s_greater_than", 25: "power_lap_less_than", 26: "power_lap_greater_than",
        27: "repeat_until_training_peaks_tss", 28: "repetition_time", 29: "reps", 31: "time_only",
    },
    wkt_step_target: {
        0: "speed", 1: "heart_rate", 2: "open", 3: "cadence", 4: "power", 5: "grade", 6: "resistance", 7: "power_3s",
        8: "power_10s", 9: "power_30s", 10: "power_lap", 11: "swim_stroke", 12: "speed_lap", 13: "heart_rate_lap",
    },
    workout_equipment: {
        0: "none", 1: "swim_fins", 2: "swim_kickboard", 3: "swim_paddles", 4: "swim_pull_buoy", 5: "swim_snorkel",
    },
}

/* Of each message, by its number, its fields that have a type, by their numbers. */
export const TYPES = {
    0: {
        0: "file", 1: "manufacturer",
    },
    2: {
        4: "time_mode", 12: "backlight_mode", 47: "date_mode", 55: "display_orientation", 56: "side",
        89: "auto_sync_frequency", 95: "display_orientation",
    },
    3: {
        1: "gender", 5: "language", 6: "display_measure", 7: "display_measure", 12: "display_heart", 13: "display_measure",
        14: "display_measure", 16: "display_power", 18: "display_position", 21: "display_measure", 30: "display_measure",
    },
    7: {
        5: "hr_zone_calc", 7: "pwr_zone_calc",
    },
    12: {
        0: "sport", 1: "sub_sport",
    },
    18: {
        0: "event", 1: "event_type", 5: "sport", 6: "sub_sport", 28: "session_trigger", 43: "swim_stroke",
        46: "display_measure",
    },
    19: {
        0: "event", 1: "event_type", 23: "intensity", 24: "lap_trigger", 25: "sport", 38: "swim_stroke", 39: "sub_sport",
    },
    20: {
        42: "activity_type", 49: "stroke_type",
    },
    21: {
        0: "event", 1: "event_type",
    },
    23: {
        2: "manufacturer", 11: "battery_status", 18: "body_location", 22: "ant_network", 25: "source_type",
    },
    26: {
        4: "sport", 11: "sub_sport", 15: "display_measure",
    },
    27: {
        1: "wkt_step_duration", 3: "wkt_step_target", 7: "intensity", 9: "workout_equipment",
    },
    31: {
        4: "sport", 7: "sub_sport",
    },
    32: {
        5: "course_point",
    },
    34: {
        2: "activity", 3: "event", 4: "event_type",
    },
    72: {
        0: "file", 1: "manufacturer",
    },
    101: {
        0: "event", 1: "event_type", 7: "swim_stroke", 12: "length_type",
    },
    206: {
        2: "fit_base_type", 13: "fit_base_unit", 14: "mesg_num",
    },
    207: {
        2: "manufacturer",
    },
    216: {
        0: "mesg_num", 10: "hr_zone_calc", 14: "pwr_zone_calc",
    },
    225: {
        5: "set_type", 7: "exercise_category", 9: "fit_base_unit",
    },
    312: {
        0: "split_type",
    },
    313: {
        0: "split_type",
    },
    317: {
        2: "climb_pro_event",
    },
}

/* Of each message the fields whose type depends on another field: a list of [that field, its number, the type]. */
export const SUBFIELDS = {
    0: {
        2: [[1, 1, "garmin_product"], [1, 13, "garmin_product"], [1, 15, "garmin_product"], [1, 89, "garmin_product"], [1, 263, "favero_product"]],
    },
    21: {
        3: [[0, 0, "timer_trigger"], [0, 27, "fitness_equipment_state"], [0, 44, "rider_position_type"], [0, 47, "comm_timeout_type"]],
    },
    23: {
        1: [[25, 1, "antplus_device_type"], [25, 3, "ble_device_type"], [25, 5, "local_device_type"]],
        4: [[2, 1, "garmin_product"], [2, 13, "garmin_product"], [2, 15, "garmin_product"], [2, 89, "garmin_product"], [2, 263, "favero_product"]],
    },
    72: {
        2: [[1, 1, "garmin_product"], [1, 13, "garmin_product"], [1, 15, "garmin_product"], [1, 89, "garmin_product"], [1, 263, "favero_product"]],
    },
}
